"""The tools around `lambda_local serve`, over its public interface alone (Python's standard library)."""
