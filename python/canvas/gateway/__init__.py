"""The parts of the gateway, from the server's side to the browser's: session, pictures, looks, tabs, application."""
