cat ../../../examples/services.script
