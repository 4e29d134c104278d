//go:build red

package sub

import "testing"

func TestFails(t *testing.T) { t.Error("1 != 2") }
func TestIsSkipped(t *testing.T) { t.Skip("no network") }
