with Ada.Finalization; with Ada.Text_IO; with Ada.Unchecked_Deallocation;
procedure Main is
   type Counter is new Ada.Finalization.Limited_Controlled with record Count : Integer := 0; end record;
   overriding procedure Initialize (Object : in out Counter);
   overriding procedure Finalize (Object : in out Counter);
   type Counter_Link is access Counter;
   procedure Free_Counter is new Ada.Unchecked_Deallocation (Counter, Counter_Link);
   type Chest is new Ada.Finalization.Limited_Controlled with record Inner : Counter; Held : Counter_Link; end record;
   overriding procedure Finalize (Object : in out Chest);
   type Chest_Link is access Chest;
   procedure Free_Chest is new Ada.Unchecked_Deallocation (Chest, Chest_Link);
   type Shelf is record Held : Chest_Link; Number : Integer := 7; end record;
   overriding procedure Initialize (Object : in out Counter) is
   begin
      Object.Count := 1;
   end Initialize;
   overriding procedure Finalize (Object : in out Counter) is
      N : Integer := 3;
   begin
      while N > 0 loop
         Ada.Text_IO.Put_Line (Integer'Image (N));
         N := N - 1;
      end loop;
      Object.Count := 0;
   exception
      when others => null;
   end Finalize;
   overriding procedure Finalize (Object : in out Chest) is
   begin
      Ada.Text_IO.Put_Line ("a chest");
      Free_Counter (Object.Held);
      Ada.Text_IO.Put_Line ("its counter is gone");
   end Finalize;
   S : Shelf;
begin
   S.Held := new Chest;
   S.Held.Held := new Counter;
   Free_Chest (S.Held);
   Ada.Text_IO.Put_Line (Integer'Image (S.Number));
end Main;
