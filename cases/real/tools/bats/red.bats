@test "adds" { [ $((1 + 1)) -eq 2 ]; }
@test "fails" { printf 'a \033[31mred\033[m word\n'; echo "on standard error" >&2; false; }
@test "is skipped" { skip "no network"; }
