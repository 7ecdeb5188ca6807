"""What the tools for people know of programs, worlds, books and runs; the proved program rules."""
