"""The command canvas-gateway."""

from canvas.gateway.main import main

main()
