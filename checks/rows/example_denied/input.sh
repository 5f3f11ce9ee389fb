cat ../../../examples/denied.script
