with Ada.Finalization; with Ada.Text_IO; with Ada.Unchecked_Deallocation;
procedure Main is
   type Cell is record Value : Integer := 3; end record;
   type Ref is access Cell;
   procedure Free is new Ada.Unchecked_Deallocation (Cell, Ref);
   type Box is new Ada.Finalization.Limited_Controlled with record Item : Ref; Number : Integer := 0; end record;
   overriding procedure Finalize (Object : in out Box);
   overriding procedure Finalize (Object : in out Box) is
   begin
      Ada.Text_IO.Put_Line (Integer'Image (Object.Number));
      Free (Object.Item);
   end Finalize;
   C : Ref := new Cell;
begin
   declare
      type Near;
      type Far;
      type Far_Link is access Far;
      type Near_Link is access Near;
      type Near is record Held : Box; Other : Far_Link; end record;
      type Far is record Held : Box; Other : Near_Link; end record;
      N : Near_Link := new Near;
   begin
      N.Held.Number := 1;
      N.Held.Item := new Cell;
      N.Other := new Far;
      N.Other.Held.Number := 2;
      N.Other.Held.Item := new Cell;
      N.Other.Other := new Near;
      N.Other.Other.Held.Number := 3;
      C.Value := C.Value + 1;
      raise Constraint_Error;
   exception
      when Constraint_Error => Ada.Text_IO.Put_Line ("raised");
   end;
   Ada.Text_IO.Put_Line (Integer'Image (C.Value));
   Free (C);
end Main;
