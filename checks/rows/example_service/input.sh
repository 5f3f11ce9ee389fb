cat ../../../examples/service.script
