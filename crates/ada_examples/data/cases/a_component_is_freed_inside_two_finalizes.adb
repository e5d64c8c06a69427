with Ada.Finalization; with Ada.Text_IO; with Ada.Unchecked_Deallocation;
procedure Main is
   type Cell is record Value : Integer := 0; end record;
   type Ref is access Cell;
   procedure Free is new Ada.Unchecked_Deallocation (Cell, Ref);
   type Box is new Ada.Finalization.Limited_Controlled with record Item : Ref; end record;
   overriding procedure Finalize (Object : in out Box);
   type Box_Link is access Box;
   procedure Free_Box is new Ada.Unchecked_Deallocation (Box, Box_Link);
   type Shelf;
   type Shelf_Link is access Shelf;
   type Shelf is record Held : Box_Link; Next : Shelf_Link; end record;
   procedure Free_Shelf is new Ada.Unchecked_Deallocation (Shelf, Shelf_Link);
   type Room is new Ada.Finalization.Limited_Controlled with record Wall : Shelf_Link; end record;
   overriding procedure Finalize (Object : in out Room);
   type Room_Link is access Room;
   procedure Free_Room is new Ada.Unchecked_Deallocation (Room, Room_Link);
   type House is new Ada.Finalization.Limited_Controlled with record Front : Room_Link; Back : Room; end record;
   overriding procedure Finalize (Object : in out House);
   overriding procedure Finalize (Object : in out Box) is
   begin
      if Object.Item /= null then
         Ada.Text_IO.Put_Line (Integer'Image (Object.Item.Value));
      end if;
      Free (Object.Item);
   exception
      when others => null;
   end Finalize;
   overriding procedure Finalize (Object : in out Room) is
      Rest : Shelf_Link;
   begin
      while Object.Wall /= null loop
         Free_Box (Object.Wall.Held);
         Rest := Object.Wall.Next;
         Object.Wall.Next := null;
         Free_Shelf (Object.Wall);
         Object.Wall := Rest;
         Rest := null;
      end loop;
      Ada.Text_IO.Put_Line ("a room");
   exception
      when others => null;
   end Finalize;
   overriding procedure Finalize (Object : in out House) is
      Mine : Room_Link;
   begin
      Mine := Object.Front;
      Object.Front := null;
      Free_Room (Mine);
      Ada.Text_IO.Put_Line ("the house");
   end Finalize;
   procedure Fill (Object : in out Room; N : Integer) is
   begin
      for I in 1 .. 2 loop
         Object.Wall := new Shelf'(Held => null, Next => Object.Wall);
         Object.Wall.Held := new Box;
         Object.Wall.Held.Item := new Cell'(Value => N + I);
      end loop;
   end Fill;
   H : House;
begin
   H.Front := new Room;
   Fill (H.Front.all, 10);
   Fill (H.Back, 20);
   Ada.Text_IO.Put_Line ("left");
end Main;
