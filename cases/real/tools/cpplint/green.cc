// Copyright 2026 Demo
int main() {
  return 0;
}
