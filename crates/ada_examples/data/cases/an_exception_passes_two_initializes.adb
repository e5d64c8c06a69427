with Ada.Finalization; with Run_Input; with Ada.Text_IO; with Ada.Unchecked_Deallocation;
procedure Main is
   type Cell is record Value : Integer := 2; end record;
   type Ref is access Cell;
   procedure Free is new Ada.Unchecked_Deallocation (Cell, Ref);
   type Box is new Ada.Finalization.Limited_Controlled with record Item : Ref; end record;
   overriding procedure Initialize (Object : in out Box);
   overriding procedure Finalize (Object : in out Box);
   type Box_Link is access Box;
   procedure Free_Box is new Ada.Unchecked_Deallocation (Box, Box_Link);
   type Chest is new Ada.Finalization.Limited_Controlled with record Held : Box_Link; end record;
   overriding procedure Initialize (Object : in out Chest);
   overriding procedure Finalize (Object : in out Chest);
   type Room is record Front : Box; Back : Chest; end record;
   type Room_Link is access Room;
   procedure Free_Room is new Ada.Unchecked_Deallocation (Room, Room_Link);
   overriding procedure Initialize (Object : in out Box) is
      N : Integer := 0;
   begin
      Object.Item := new Cell;
      Run_Input.Get (N);
      Object.Item.Value := N;
   end Initialize;
   overriding procedure Finalize (Object : in out Box) is
   begin
      Free (Object.Item);
      Ada.Text_IO.Put_Line ("no box");
   end Finalize;
   overriding procedure Initialize (Object : in out Chest) is
      L : Box_Link;
   begin
      L := new Box;
      Object.Held := L;
   end Initialize;
   overriding procedure Finalize (Object : in out Chest) is
   begin
      Free_Box (Object.Held);
      Ada.Text_IO.Put_Line ("no chest");
   end Finalize;
   R : Room_Link;
begin
   R := new Room;
   Ada.Text_IO.Put_Line (Integer'Image (R.Back.Held.Item.Value));
   Free_Room (R);
   R := new Room;
   Ada.Text_IO.Put_Line (Integer'Image (R.Front.Item.Value));
exception
   when others => Ada.Text_IO.Put_Line ("no more numbers");
end Main;
