.PHONY: demo gate

# Proves what the demo needs, and runs it.
demo:
	@mkdir -p target
	@cd crates/demo && rt run 2> ../../target/demo.log || { cat ../../target/demo.log; exit 1; }

# Proves everything from nothing, tries every must-fail edit, runs every program and test.
gate:
	@.ci/run
