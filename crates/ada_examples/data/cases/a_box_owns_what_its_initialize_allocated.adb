with Ada.Finalization; with Ada.Text_IO; with Ada.Unchecked_Deallocation; with Profile_Pools;
procedure Main is
   type Cell is record Value : Integer := 7; end record;
   Room : Profile_Pools.First_Fit_Pool (5);
   type Ref is access Cell with Storage_Pool => Room;
   procedure Free is new Ada.Unchecked_Deallocation (Cell, Ref);
   type Box is new Ada.Finalization.Limited_Controlled with record Item : Ref; end record;
   overriding procedure Initialize (Object : in out Box);
   overriding procedure Finalize (Object : in out Box);
   type Box_Link is access Box;
   procedure Free_Box is new Ada.Unchecked_Deallocation (Box, Box_Link);
   overriding procedure Initialize (Object : in out Box) is
   begin
      Object.Item := new Cell;
      Ada.Text_IO.Put_Line ("a cell");
   end Initialize;
   overriding procedure Finalize (Object : in out Box) is
   begin
      Free (Object.Item);
      Ada.Text_IO.Put_Line ("freed");
   end Finalize;
   B : Box_Link;
begin
   for I in 1 .. 2 loop
      B := new Box;
      Ada.Text_IO.Put_Line (Integer'Image (B.Item.Value));
      Free_Box (B);
   end loop;
   B := new Box;
   B := new Box;
exception
   when Storage_Error =>
      Ada.Text_IO.Put_Line (Integer'Image (B.Item.Value));
end Main;
