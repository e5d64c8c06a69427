with Ada.Finalization; with Ada.Unchecked_Deallocation;
procedure Main is
   type Cell is record Value : Integer := 7; end record;
   type Link is access Cell;
   type Holder is new Ada.Finalization.Controlled with record Held : Link; end record;
   type Pair is record Left : Holder; Count : Integer := 0; end record;
   overriding procedure Finalize (Object : in out Holder);
   procedure Free is new Ada.Unchecked_Deallocation (Cell, Link);
   overriding procedure Finalize (Object : in out Holder) is
   begin
      Free (Object.Held);
   end Finalize;
   A : Pair;
begin
   A.Left.Held := new Cell;
   declare
      B : Pair := A;
   begin
      B.Count := 1;
   end;
end Main;
