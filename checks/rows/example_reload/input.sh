cat ../../../examples/reload.script
