cat ../../../examples/workers.script
