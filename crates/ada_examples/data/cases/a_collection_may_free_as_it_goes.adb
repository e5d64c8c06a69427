with Ada.Finalization; with Ada.Text_IO; with Ada.Unchecked_Deallocation;
procedure Main is
   type Cell is record Value : Integer := 1; end record;
   type Link is access Cell;
   type Box is new Ada.Finalization.Limited_Controlled with record Content : Link; end record;
   procedure Finalize (Object : in out Box);
   procedure Free is new Ada.Unchecked_Deallocation (Cell, Link);
   procedure Finalize (Object : in out Box) is
   begin
      Free (Object.Content);
   end Finalize;
   A : Link := new Cell;
   B : access Cell := A;
begin
   declare
      type Ref is access Box;
      D : Ref := new Box;
   begin
      D.Content := A;
   end;
   Ada.Text_IO.Put_Line (Integer'Image (B.Value));
end Main;
