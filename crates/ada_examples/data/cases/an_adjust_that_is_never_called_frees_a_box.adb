with Ada.Finalization; with Ada.Text_IO; with Ada.Unchecked_Deallocation;
procedure Main is
   type Cell is record Value : Integer := 0; end record;
   type Ref is access Cell;
   procedure Free is new Ada.Unchecked_Deallocation (Cell, Ref);
   type Box is new Ada.Finalization.Limited_Controlled with record Item : Ref; end record;
   overriding procedure Finalize (Object : in out Box);
   type Box_Link is access Box;
   procedure Free_Box is new Ada.Unchecked_Deallocation (Box, Box_Link);
   type Chest is new Ada.Finalization.Controlled with record Held : Box_Link; end record;
   overriding procedure Adjust (Object : in out Chest);
   overriding procedure Finalize (Object : in out Chest);
   overriding procedure Finalize (Object : in out Box) is
   begin
      if Object.Item /= null then
         Ada.Text_IO.Put_Line (Integer'Image (Object.Item.Value));
      end if;
      Free (Object.Item);
   exception
      when others => null;
   end Finalize;
   overriding procedure Adjust (Object : in out Chest) is
      Mine : Box_Link;
   begin
      Object.Held := null;
      Free_Box (Mine);
   end Adjust;
   overriding procedure Finalize (Object : in out Chest) is
      Mine : Box_Link;
   begin
      Mine := Object.Held;
      Object.Held := null;
      Free_Box (Mine);
   end Finalize;
   C : Chest;
begin
   C.Held := new Box;
end Main;
