cat ../../../examples/recipes.json
