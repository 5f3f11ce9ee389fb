cat ../../../examples/headers.script
