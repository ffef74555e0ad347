"""The words of `./amreplay` beside the proved program. They know no rule: what they say of an incident, the program answered."""
