cat ../../../examples/canary.json
