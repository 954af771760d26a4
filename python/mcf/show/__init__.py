"""What a file of mcf is and says: a network, a certificate or routing, or what batch, sweep, sweepsolve or whatif wrote."""
