with Ada.Finalization; with Ada.Text_IO; with Ada.Unchecked_Deallocation;
procedure Main is
   type Cell is record Value : Integer := 0; end record;
   type Ref is access Cell;
   procedure Free is new Ada.Unchecked_Deallocation (Cell, Ref);
   type Box is new Ada.Finalization.Limited_Controlled with record Item : Ref; end record;
   overriding procedure Finalize (Object : in out Box);
   type Box_Link is access Box;
   procedure Free_Box is new Ada.Unchecked_Deallocation (Box, Box_Link);
   type Chest is new Ada.Finalization.Limited_Controlled with record Held : Box_Link; Size : Integer := 0; end record;
   overriding procedure Finalize (Object : in out Chest);
   overriding procedure Finalize (Object : in out Box) is
   begin
      Ada.Text_IO.Put_Line (Integer'Image (10 / Object.Item.Value));
      Free (Object.Item);
   exception
      when Constraint_Error =>
         Ada.Text_IO.Put_Line ("no cell, or zero");
         Free (Object.Item);
   end Finalize;
   overriding procedure Finalize (Object : in out Chest) is
      Mine : Box_Link;
   begin
      Mine := Object.Held;
      Object.Held := null;
      Free_Box (Mine);
      Ada.Text_IO.Put_Line (Integer'Image (12 / Object.Size));
   exception
      when others => Ada.Text_IO.Put_Line ("no size");
   end Finalize;
begin
   for I in 0 .. 2 loop
      declare
         C : Chest;
      begin
         C.Size := I;
         C.Held := new Box;
         if I /= 1 then
            C.Held.Item := new Cell'(Value => I);
         end if;
      end;
   end loop;
   Ada.Text_IO.Put_Line ("left");
end Main;
