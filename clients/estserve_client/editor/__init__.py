"""The language server: what an editor is told of module texts as they are typed."""
