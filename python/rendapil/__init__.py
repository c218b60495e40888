"""The command `rendapil`: runs the gateway over captures, and looks at settings, captures and runs."""
