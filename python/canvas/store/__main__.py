"""The command canvas-store."""

from canvas.store.main import main

main()
