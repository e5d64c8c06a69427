with Ada.Finalization; with Ada.Text_IO; with Ada.Unchecked_Deallocation;
procedure Main is
   type Cell is record Value : Integer := 3; end record;
   type Ref is access Cell;
   procedure Free is new Ada.Unchecked_Deallocation (Cell, Ref);
   type Lamp;
   type Lamp_Link is access Lamp;
   type Desk;
   type Desk_Link is access Desk;
   type Room;
   type Room_Link is access Room;
   type Lamp is new Ada.Finalization.Limited_Controlled with record Item : Ref; Stands_In : Room_Link; end record;
   overriding procedure Finalize (Object : in out Lamp);
   type Desk is new Ada.Finalization.Limited_Controlled with record Item : Ref; Light : Lamp_Link; end record;
   overriding procedure Finalize (Object : in out Desk);
   type Room is new Ada.Finalization.Limited_Controlled with record Item : Ref; Table : Desk_Link; end record;
   overriding procedure Finalize (Object : in out Room);
   overriding procedure Finalize (Object : in out Lamp) is
   begin
      if Object.Stands_In = null then
         Ada.Text_IO.Put_Line ("lamp alone");
      else
         Ada.Text_IO.Put_Line ("lamp in a room");
      end if;
      Object.Stands_In := null;
      Free (Object.Item);
   end Finalize;
   overriding procedure Finalize (Object : in out Desk) is
   begin
      Ada.Text_IO.Put_Line ("desk");
      Free (Object.Item);
   end Finalize;
   overriding procedure Finalize (Object : in out Room) is
   begin
      Ada.Text_IO.Put_Line ("room");
      Object.Item := null;
   end Finalize;
   R : Room_Link := new Room;
begin
   R.Item := new Cell;
   R.Table := new Desk;
   R.Table.Item := new Cell;
   R.Table.Light := new Lamp;
   R.Table.Light.Item := new Cell;
   R.Table.Light.Stands_In := new Room;
   R.Table.Light.Stands_In.Table := new Desk;
end Main;
