with Ada.Text_IO;
procedure Main is
type Pair is record First : Integer := 1; end record;
procedure One (A : in out Pair) is begin A.First := 2; end One;
R : Pair;
begin One (R); end Main;
