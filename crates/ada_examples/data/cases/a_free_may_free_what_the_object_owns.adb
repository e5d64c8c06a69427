with Ada.Finalization; with Ada.Text_IO; with Ada.Unchecked_Deallocation;
procedure Main is
   type Cell is record Value : Integer := 1; end record;
   type Link is access Cell;
   type Box is new Ada.Finalization.Limited_Controlled with record Content : Link; end record;
   type Ref is access Box;
   procedure Finalize (Object : in out Box);
   procedure Free is new Ada.Unchecked_Deallocation (Cell, Link);
   procedure Free_Box is new Ada.Unchecked_Deallocation (Box, Ref);
   procedure Finalize (Object : in out Box) is
   begin
      Free (Object.Content);
   end Finalize;
   D : Ref := new Box;
   A : Link := new Cell;
   B : access Cell := A;
begin
   D.Content := A;
   Free_Box (D);
   Ada.Text_IO.Put_Line (Integer'Image (B.Value));
end Main;
