"""Scripts of `gles2_cli ring` by name. docs/TOOLS.md says what may be written; nothing here is proved."""
