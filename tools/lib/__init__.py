"""What the commands of tools/ share: the crates, the toolchain, copies, edits, programs, a plain model, and pictures."""
