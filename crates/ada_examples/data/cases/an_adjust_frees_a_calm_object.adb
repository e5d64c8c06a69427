with Ada.Finalization; with Ada.Text_IO; with Ada.Unchecked_Deallocation;
procedure Main is
   type Count is new Ada.Finalization.Limited_Controlled with record Number : Integer := 0; end record;
   overriding procedure Finalize (Object : in out Count);
   type Count_Link is access Count;
   procedure Free_Count is new Ada.Unchecked_Deallocation (Count, Count_Link);
   type Chest is new Ada.Finalization.Controlled with record Held : Count_Link; end record;
   overriding procedure Adjust (Object : in out Chest);
   overriding procedure Finalize (Object : in out Count) is
   begin
      Ada.Text_IO.Put_Line (Integer'Image (Object.Number));
   end Finalize;
   overriding procedure Adjust (Object : in out Chest) is
   begin
      Object.Held := null;
      Free_Count (Object.Held);
   end Adjust;
   C : Chest;
   D : Chest;
begin
   D.Held := new Count;
   C := D;
end Main;
