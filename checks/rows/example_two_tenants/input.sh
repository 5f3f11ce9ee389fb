cat ../../../examples/two_tenants.script
