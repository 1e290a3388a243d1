"""What the test suites need and is no test."""
