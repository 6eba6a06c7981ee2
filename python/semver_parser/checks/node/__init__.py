"""What the tools of npm's registry share: package.json, specifiers, workspaces and .npmrc."""
