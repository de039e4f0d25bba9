"""The library as another program calls it: by `import gudokeyi` alone."""
