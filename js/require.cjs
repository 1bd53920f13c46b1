throw new Error("polytwkb is an ES module: use import, or await import('polytwkb')");
