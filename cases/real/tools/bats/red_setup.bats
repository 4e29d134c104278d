setup_file() { echo "cannot set up"; false; }
@test "never runs" { true; }
