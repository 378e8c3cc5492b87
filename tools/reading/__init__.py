"""What the tools know of models: their texts, with the place of each piece, and what their expressions mean in a state.

It shares no code with the solver. Where a tool tells something that the solver tells too, it tells it only where both agree."""
