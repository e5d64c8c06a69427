with Ada.Finalization;
procedure Main is
type Pair is new Ada.Finalization.Controlled with record Left : Integer := 0; Right : Integer := 0; end record;
type Link is access Pair;
A : Link := new Pair'(1, 2);
begin
null;
end Main;
