cat ../../../examples/streams.script
