"""What the command ./roverivet is made of."""
