with Ada.Finalization; with Ada.Text_IO; with Ada.Unchecked_Deallocation;
procedure Main is
   type Cell is record Value : Integer := 0; end record;
   type Ref is access Cell;
   procedure Free is new Ada.Unchecked_Deallocation (Cell, Ref);
   type Box is new Ada.Finalization.Limited_Controlled with record Item : Ref; end record;
   overriding procedure Initialize (Object : in out Box);
   overriding procedure Finalize (Object : in out Box);
   type Box_Link is access Box;
   procedure Free_Box is new Ada.Unchecked_Deallocation (Box, Box_Link);
   type Shelf is record First : Box_Link; Second : Box_Link; end record;
   overriding procedure Initialize (Object : in out Box) is
   begin
      Object.Item := new Cell'(Value => 1);
   exception
      when others => null;
   end Initialize;
   overriding procedure Finalize (Object : in out Box) is
   begin
      Free (Object.Item);
      Ada.Text_IO.Put_Line ("emptied");
   end Finalize;
   S : Shelf;
   B : Box_Link;
begin
   B := new Box;
   S.First := B;
   B := new Box;
   S.Second := B;
   B := S.First;
   S.First := null;
   B.Item.Value := 5;
   Ada.Text_IO.Put_Line (Integer'Image (B.Item.Value));
   Free_Box (B);
   Ada.Text_IO.Put_Line ("left");
end Main;
