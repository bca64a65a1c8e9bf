"""What scripts/plan is made of: rules of stands, preferences, an allocation of parts to stands, methods that improve it, and the client that
reads a server's plan and sends drafts. It needs Python 3.11 and nothing else."""
