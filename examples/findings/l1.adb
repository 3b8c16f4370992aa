procedure Add__One (X : in out Integer)
