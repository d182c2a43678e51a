"""What the commands of bench/ share: the scripts that they run, how a run is timed, and how a measure is told to be within its bound."""
