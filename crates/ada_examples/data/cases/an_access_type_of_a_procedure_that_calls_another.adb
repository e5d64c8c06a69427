with Ada.Text_IO;
with Ada.Unchecked_Deallocation;

procedure Main is
   procedure Inner is
      type Cell is record
         Value : Integer := 5;
      end record;
      type Chain is access Cell;
      Top : Chain := new Cell;
   begin
      Ada.Text_IO.Put_Line (Integer'Image (Top.Value));
   end Inner;
   procedure Outer is
      type Cell is record
         Value : Integer := 6;
      end record;
      type Chain is access Cell;
      Top : Chain := new Cell;
   begin
      Inner;
      Ada.Text_IO.Put_Line (Integer'Image (Top.Value));
      Inner;
   end Outer;
begin
   Outer;
   Inner;
end Main;
