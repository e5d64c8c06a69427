procedure Main is
procedure Swap (A : in out Integer; B : in out Integer) is
T : Integer := A;
begin A := B; B := T; end Swap;
X : Integer := 1;
begin Swap (X, X); end Main;
