"""The rules of policies: what each command makes of a policy or why it is refused, and what to do about a refusal."""
