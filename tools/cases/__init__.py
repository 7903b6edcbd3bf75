"""Random cases of the definitions with the answers of the model in tools/tests, which tools/draw_cases writes."""
