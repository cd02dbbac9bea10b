"""What stands beside canvas and canvasd: a client for programs, and commands that keep a copy, show documents in the
browser, or keep many of them.

    from canvas import Canvas

    with Canvas.connect("127.0.0.1:7878") as canvas:
        print(canvas.point(0, 0)["colour"])

`canvas.client` says more.
"""

from canvas.client import Canvas, Feed, FeedRefused, KeptEdit, Picture, Refused, Saved, picture_of, replies

__all__ = ["Canvas", "Feed", "FeedRefused", "KeptEdit", "Picture", "Refused", "Saved", "picture_of", "replies"]
