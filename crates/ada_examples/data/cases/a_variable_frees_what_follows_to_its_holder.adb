with Ada.Finalization; with Ada.Text_IO; with Ada.Unchecked_Deallocation;
procedure Main is
   type Shelf;
   type Shelf_Link is access Shelf;
   type Box;
   type Box_Link is access Box;
   type Shelf is record Held : Box_Link; Beside : Box_Link; Number : Integer := 1; end record;
   procedure Free_Shelf is new Ada.Unchecked_Deallocation (Shelf, Shelf_Link);
   type Box is new Ada.Finalization.Limited_Controlled with record Around : Shelf_Link; Weight : Integer := 2; end record;
   overriding procedure Finalize (Object : in out Box);
   procedure Free_Box is new Ada.Unchecked_Deallocation (Box, Box_Link);
   overriding procedure Finalize (Object : in out Box) is
      Mine : Shelf_Link;
   begin
      Mine := Object.Around;
      Object.Around := null;
      Mine.Beside := Mine.Held;
      Mine.Held := null;
   exception
      when others => null;
   end Finalize;
   procedure Clear (Object : in out Shelf) is
      Mine : Box_Link;
   begin
      Mine := Object.Held;
      Object.Held := null;
      Free_Box (Mine);
   end Clear;
   S : Shelf_Link := new Shelf;
   Seen : access Shelf := S;
   B : Box_Link := new Box;
begin
   B.Around := S;
   Seen.Held := B;
   Clear (Seen.all);
   Ada.Text_IO.Put_Line (Integer'Image (Seen.Beside.Weight));
end Main;
