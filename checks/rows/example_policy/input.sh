cat ../../../examples/two_tenants.json
