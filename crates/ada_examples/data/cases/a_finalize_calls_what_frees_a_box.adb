with Ada.Finalization; with Ada.Text_IO; with Ada.Unchecked_Deallocation;
procedure Main is
   type Cell is record Value : Integer := 0; end record;
   type Ref is access Cell;
   procedure Free is new Ada.Unchecked_Deallocation (Cell, Ref);
   type Box is new Ada.Finalization.Limited_Controlled with record Item : Ref; end record;
   overriding procedure Finalize (Object : in out Box);
   type Box_Link is access Box;
   procedure Free_Box is new Ada.Unchecked_Deallocation (Box, Box_Link);
   type Chest is new Ada.Finalization.Limited_Controlled with record Left : Box_Link; Right : Box_Link; end record;
   overriding procedure Finalize (Object : in out Chest);
   procedure Show (R : Ref) is
   begin
      if R = null then
         Ada.Text_IO.Put_Line ("nothing");
      else
         Ada.Text_IO.Put_Line (Integer'Image (R.Value));
      end if;
   end Show;
   overriding procedure Finalize (Object : in out Box) is
   begin
      Show (Object.Item);
      Free (Object.Item);
   exception
      when others => null;
   end Finalize;
   procedure Drop (B : in out Box_Link) is
   begin
      Ada.Text_IO.Put_Line ("drops");
      Free_Box (B);
   end Drop;
   procedure Drop_Both (Object : in out Chest) is
      Mine : Box_Link;
   begin
      Mine := Object.Left;
      Object.Left := null;
      Drop (Mine);
      Mine := Object.Right;
      Object.Right := null;
      Drop (Mine);
   end Drop_Both;
   overriding procedure Finalize (Object : in out Chest) is
   begin
      Drop_Both (Object);
      Drop_Both (Object);
   end Finalize;
   C : Chest;
begin
   C.Left := new Box;
   C.Left.Item := new Cell'(Value => 3);
   C.Right := new Box;
   Ada.Text_IO.Put_Line ("left");
end Main;
