"""The helps of the proof loop, called by tools/proof: what stands in the way of a proof, and less to write of it."""
